      DO 10 WHILE (I.LT.3)
      I=I+1
      J=0
      DO 20 WHILE (J.LT.I)
      J=J+1
      K=0
      DO 30 WHILE (K.LT.J)
      K=K+1
   30 N=N+K
      WRITE (6,40) I,J,K,N
   20 CONTINUE
   10 END DO
   40 FORMAT (4I4)
      END
