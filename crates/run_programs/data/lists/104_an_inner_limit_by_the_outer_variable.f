      PRINT '(6I3)',((10*I+J,J=1,I),I=1,3)
      END
