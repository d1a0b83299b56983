      PRINT 10,(I=1,3)
   10 FORMAT (I3)
      END
