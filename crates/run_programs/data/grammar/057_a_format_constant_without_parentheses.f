      PRINT 'I5',1
      END
