      A(1))=1
      END
