      DO 10 I=1,2
      END IF
10    J=1
      END
