      I=MOD(5,3)
      IF (I.EQ.2) MOD=1
      END
