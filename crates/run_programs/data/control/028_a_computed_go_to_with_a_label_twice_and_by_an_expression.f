      DO 30 I=1,4
      GO TO (10,20,10,20),5-I
   10 K=K+I
      GO TO 30
   20 K=K+10*I
   30 CONTINUE
      WRITE (6,40) K
   40 FORMAT (I4)
      END
