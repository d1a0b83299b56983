      WRITE (6,*) I
      END
