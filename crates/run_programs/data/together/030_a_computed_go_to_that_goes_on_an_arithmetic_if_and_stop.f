      GO TO (30,40),3
      WRITE (6,10)
   10 FORMAT ('NEXT')
   30 IF (0) 40,50,40
   40 STOP 'WRONG'
   50 STOP 7
      END
