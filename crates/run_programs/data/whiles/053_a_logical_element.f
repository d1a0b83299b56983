      LOGICAL L(7)
      DATA L/4*.TRUE.,.FALSE.,2*.TRUE./
      I=1
      DO WHILE (L(I))
      L(I)=.FALSE.
      I=I+1
      END DO
      WRITE (6,10) I,L
   10 FORMAT (I4,7L2)
      END
