      PRINT 9
      PARAMETER(K=1)
      END
