      ISQ(N)=N*N
      WRITE (6,10) (ISQ(I),MAX(I,2),I=1,3)
   10 FORMAT (6I2)
      END
