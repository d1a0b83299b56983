      WRITE (FMT='(''IT''''S'')',UNIT=6)
      END
