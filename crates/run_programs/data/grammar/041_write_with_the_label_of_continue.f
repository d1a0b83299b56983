      I=1
      WRITE (6,10) (K,K=1,2)
   10 CONTINUE
      END
