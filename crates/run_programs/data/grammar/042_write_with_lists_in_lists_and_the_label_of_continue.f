      I=1
      WRITE (6,10) I,((A(K,J),K=1,2),J=1,3,2)
   10 CONTINUE
      END
