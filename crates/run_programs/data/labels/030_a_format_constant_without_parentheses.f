      PRINT 'I3',1
      END
