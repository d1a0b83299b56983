      ISQ(I)=I*I
      DO I=ISQ(2),ISQ(3)+1,ISQ(1)+1
      K=K+ISQ(I)
      END DO
      WRITE (6,10) I,K
   10 FORMAT (2I4)
      END
