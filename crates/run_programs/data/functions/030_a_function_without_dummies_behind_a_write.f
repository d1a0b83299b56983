      WRITE (6,10)
      M()=1
   10 FORMAT ('A')
      END
