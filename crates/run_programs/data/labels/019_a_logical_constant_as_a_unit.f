      WRITE (.TRUE.,10) 1
   10 FORMAT (I3)
      END
