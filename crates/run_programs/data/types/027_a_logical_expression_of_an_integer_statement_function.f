      ISONE(N)=N.EQ.1
      END
