      I=1
      IF (I.EQ.1) M(I)=2
      END
