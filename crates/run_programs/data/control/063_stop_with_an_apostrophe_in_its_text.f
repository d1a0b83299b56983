      STOP 'IT''S ''DONE'''
      END
