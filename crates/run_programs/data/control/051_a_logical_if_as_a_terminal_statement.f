      DO 10 I=1,5
   10 IF (MOD(I,2).EQ.1) J=J+I
      DO 20 K=1,9
   20 IF (K*K.GT.20) GO TO 30
   30 WRITE (6,40) I,J,K
   40 FORMAT (3I4)
      END
