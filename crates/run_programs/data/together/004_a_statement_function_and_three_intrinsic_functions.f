      ISQ(N)=N*N
      WRITE (6,10) ISQ(3),SIGN(5,-2),DIM(2,7),MAX(3,9,4)
   10 FORMAT (4I4)
      END
