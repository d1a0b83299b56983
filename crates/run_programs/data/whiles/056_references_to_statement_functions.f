      LOGICAL IS
      IS(K,L)=K*K.LE.L
      NEXT(K)=2*K+1
      DO WHILE (IS(I,200))
      I=I+1
      END DO
      DO WHILE (NEXT(I).LT.100)
      I=NEXT(I)
      END DO
      WRITE (6,10) I
   10 FORMAT (I4)
      END
