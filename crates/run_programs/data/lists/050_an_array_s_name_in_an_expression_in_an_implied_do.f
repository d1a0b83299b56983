      INTEGER A(3)
      PRINT 10,(A+1,I=1,3)
   10 FORMAT (I3)
      END
