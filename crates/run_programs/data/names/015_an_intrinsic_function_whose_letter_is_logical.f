      IMPLICIT LOGICAL (M)
      I=MOD(7,4)
      M=.TRUE.
      WRITE (6,10) I,M
   10 FORMAT (2(I2,L2))
      END
