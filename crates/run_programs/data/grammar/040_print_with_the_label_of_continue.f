      I=1
      PRINT 10,I,(K,K=1,2)
   10 CONTINUE
      END
