      WRITE (6,10)
   10 FORMAT ('BEFORE')
      STOP
      WRITE (6,20)
   20 FORMAT ('BEHIND')
      END
