      PRINT 20,1
   10 FORMAT (I5)
      END
