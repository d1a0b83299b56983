      PRINT '(I5) X',1
      END
