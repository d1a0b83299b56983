   10 INTEGER A(2)
      A(1)=3
   10 END
