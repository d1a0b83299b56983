      DO 10 I=1,9
      IF (I.EQ.4) STOP 'FOURTH'
   10 J=J+1
      END
