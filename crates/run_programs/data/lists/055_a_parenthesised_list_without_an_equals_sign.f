      PRINT 10,(I,J)
   10 FORMAT (I3)
      END
