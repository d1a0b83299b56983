      DO J=1,2
      DO 10 I=-2147483640,-2147483641-7,-4
      WRITE (6,20) I
   10 END DO
      END DO
   20 FORMAT (I12)
      END
