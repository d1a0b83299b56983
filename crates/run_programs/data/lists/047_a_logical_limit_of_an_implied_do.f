      PRINT 10,(I,I=1,1.EQ.1)
   10 FORMAT (I3)
      END
