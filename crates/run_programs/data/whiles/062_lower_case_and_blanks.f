      d o  w h i l e ( i . l t . 5 )
      i = i + 1
      e n d d o
      DOWHILE(I.LT.9)
      I=I+1
      ENDDO
      D O 1 0 , W H I L E ( I . L T . 1 4 )
      I=I+1
  1 0 E N D D O
      do 00020 while (i .lt. 20)
 20   i = i + 1
      WRITE (6,30) I
   30 FORMAT (I4)
      END
