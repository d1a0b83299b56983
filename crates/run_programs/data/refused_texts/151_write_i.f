      WRITE(*,*)I
      END
