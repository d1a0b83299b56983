      PARAMETER (N=3)
      IMPLICIT NONE
      INTEGER N,A(N)
      DATA A/N*N/
      WRITE (6,10) N,A
   10 FORMAT (4I2)
      END
