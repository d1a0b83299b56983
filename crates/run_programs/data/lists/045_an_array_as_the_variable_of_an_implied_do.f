      INTEGER A(3)
      PRINT 10,(I,A=1,3)
   10 FORMAT (I3)
      END
