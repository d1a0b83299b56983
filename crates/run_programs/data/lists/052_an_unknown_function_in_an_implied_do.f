      PRINT 10,(I,N(I),I=1,3)
   10 FORMAT (I3)
      END
