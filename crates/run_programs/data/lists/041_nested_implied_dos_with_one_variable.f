      PRINT 10,((I,I=1,3),I=1,3)
   10 FORMAT (I3)
      END
