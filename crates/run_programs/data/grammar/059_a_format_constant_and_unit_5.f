      WRITE (5,'(I5)') 1
      END
