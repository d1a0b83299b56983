      PARAMETER (N=1)
      PRINT 10,(I,N=1,3)
   10 FORMAT (I3)
      END
