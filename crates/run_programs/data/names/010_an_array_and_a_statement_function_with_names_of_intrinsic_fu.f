      INTEGER MAX(3),ABS,B
      ABS(B)=B+100
      MAX(2)=ABS(-7)
      WRITE (6,10) MAX
   10 FORMAT (3I4)
      END
