      PRINT 10,(I,I=1,2,.TRUE.)
   10 FORMAT (I3)
      END
