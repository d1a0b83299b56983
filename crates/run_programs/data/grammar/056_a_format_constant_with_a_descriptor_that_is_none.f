      PRINT '(A5)'
      END
