      PRINT 10,(I,I=1)
   10 FORMAT (I3)
      END
