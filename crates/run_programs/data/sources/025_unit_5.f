      WRITE (5,10)
   10 FORMAT ()
      END
