      I=2
      WRITE (6,10) (I+1)*2,((I)),((J)*(I-J),J=1,2),(I)
   10 FORMAT (9I3)
      END
