      PROGRAM MAIN
      IMPLICIT NONE
      MAIN=1
      END
