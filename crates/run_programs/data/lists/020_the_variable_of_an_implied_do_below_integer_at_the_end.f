      K=-2147483647
      WRITE (6,10) (I,I=K,K-1,-1)
   10 FORMAT (I12)
      END
