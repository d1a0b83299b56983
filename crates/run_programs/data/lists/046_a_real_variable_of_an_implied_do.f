      PRINT 10,(I,X=1,3)
   10 FORMAT (I3)
      END
