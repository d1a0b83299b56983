      WRITE (6,10) (((100*I+10*J+K,K=1,2),J=1,2),I=1,2),I,J,K
   10 FORMAT (4I4)
      END
