C     A COMMENT LINE BEFORE
      IMPLICIT
C     AND ONE BETWEEN
     1NO
     2NE
      INTEGER X
      X=3
      WRITE (6,10) X
   10 FORMAT (I2)
      END
