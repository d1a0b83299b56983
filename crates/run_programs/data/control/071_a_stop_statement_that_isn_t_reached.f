      WRITE (6,10)
      GO TO 20
      STOP
   10 FORMAT ('ENDED')
   20 CONTINUE
      END
