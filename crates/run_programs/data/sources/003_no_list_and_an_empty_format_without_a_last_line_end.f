      WRITE (6,1)
    1 FORMAT ()
      END