      LOGICAL MOD
      MOD=.TRUE.
      WRITE (6,10) MOD
   10 FORMAT (L2)
      END
